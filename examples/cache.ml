(* A cache that domains share. Its table is a tree that never changes, behind an atomic cell. A
   domain that adds an entry makes a new tree and puts it there by compare_and_set; where another
   domain was first, it begins anew. An entry stands in the table before its page is made, so one
   domain alone makes the page, and those that find the entry wait for it. A page that can't be made
   is kept as an exception, which each lookup raises. Four domains read pages in a loop, each in an
   order of its own. Which domain makes which page depends on the schedule, what is printed doesn't:
   run it with any --domains and any --turns. A reader for which no slot is free reads in the first
   domain, in the end.
   Prints: reader 1: 10 lookups, 4 raised, 124 characters
           reader 2: 20 lookups, 8 raised, 248 characters
           reader 3: 30 lookups, 12 raised, 372 characters
           reader 4: 40 lookups, 16 raised, 496 characters
           100 hits, 7 misses *)

(* Tables: search trees. *)
type 'a table = Empty | Node of 'a table * string * 'a * 'a table

let rec find (key : string) table =
  match table with
  | Empty -> None
  | Node (left, other, entry, right) ->
    if key = other then Some entry else find key (if key < other then left else right)

let rec add (key : string) entry table =
  match table with
  | Empty -> Node (Empty, key, entry, Empty)
  | Node (left, other, old, right) ->
    if key < other then Node (add key entry left, other, old, right)
    else Node (left, other, old, add key entry right)

(* Caches. *)
type 'a state = Coming | Ready of 'a | Failed of exn

type 'a cache = {
  table : 'a state Atomic.t table Atomic.t;
  hits : int Atomic.t;
  misses : int Atomic.t
}

let create () = { table = Atomic.make Empty; hits = Atomic.make 0; misses = Atomic.make 0 }

(* The entry of a key, and whether this domain added it. *)
let rec entry_of cache key =
  let table = Atomic.get cache.table in
  match find key table with
  | Some entry -> (entry, false)
  | None ->
    let entry = Atomic.make Coming in
    if Atomic.compare_and_set cache.table table (add key entry table) then (entry, true)
    else entry_of cache key

let rec await entry =
  match Atomic.get entry with
  | Coming -> Domain.cpu_relax (); await entry
  | Ready value -> value
  | Failed e -> raise e

(* What the cache has for a key; it is made where the cache has nothing. *)
let lookup cache make key =
  let (entry, is_new) = entry_of cache key in
  if is_new then begin
    Atomic.incr cache.misses;
    Atomic.set entry (match make key with value -> Ready value | exception e -> Failed e)
  end
  else Atomic.incr cache.hits;
  await entry

(* Pages, of texts and other pages. No page is a part of itself: it would wait for itself. *)
type part = Text of string | Page of string

exception No_page of string

let site =
  [ ("home", [Page "head"; Text "welcome"; Page "foot"]);
    ("news", [Page "head"; Text "domains run"; Page "foot"]);
    ("plan", [Page "head"; Page "todo"]);
    ("head", [Text "[effects] "]);
    ("foot", [Text " ("; Page "date"; Text ")"]);
    ("date", [Text "1 may"]) ]

let rec parts (name : string) pages =
  match pages with
  | [] -> raise (No_page name)
  | (other, found) :: rest -> if name = other then found else parts name rest

let rec page cache name = lookup cache (make cache) name

and make cache name =
  let text part = match part with Text text -> text | Page name -> page cache name in
  List.fold_left (fun before part -> before ^ text part) "" (parts name site)

(* Readers. *)
let names = [|"home"; "news"; "plan"; "foot"; "todo"|]

let read cache reader () =
  let characters = ref 0 and raised = ref 0 in
  for i = 1 to 10 * reader do
    match page cache names.(i * reader mod 5) with
    | text -> characters := !characters + String.length text
    | exception (No_page _) -> incr raised
  done;
  (reader, !raised, !characters)

(* What gives a reader's result: it reads in a domain of its own, or in the one that asks. *)
let start cache reader =
  match Domain.spawn (read cache reader) with
  | domain -> (fun () -> Domain.join domain)
  | exception (Failure _) -> read cache reader

let say n text = print_int n; print_string text

let report (reader, raised, characters) =
  print_string "reader ";
  say reader ": ";
  say (10 * reader) " lookups, ";
  say raised " raised, ";
  say characters " characters\n"

let () =
  let cache = create () in
  let started = List.map (start cache) [1; 2; 3] in
  let last = read cache 4 () in
  List.iter (fun result -> report (result ())) started;
  report last;
  say (Atomic.get cache.hits) " hits, ";
  say (Atomic.get cache.misses) " misses\n"
