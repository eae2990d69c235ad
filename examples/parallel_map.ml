(* A parallel map by work stealing. Each domain has a scheduler of fibers. A fiber that yields goes
   to the queue of the domain that runs it. One that awaits an open promise goes to the promise, and
   whoever settles the promise queues it again. A scheduler goes on with the fibers of its own
   queue, and takes those of other domains when it has none. So a map may stand in a map, and no
   domain waits while there is a fiber that can go on. Which domain runs which fiber depends on the
   schedule, what is printed doesn't: run it with any --domains and any --turns.
   Prints: src: 26
           mail: 131
           home: secret is locked
           198 blocks read *)
open Effect
open Effect.Deep

type _ Effect.t +=
  | Yield : unit Effect.t
  | Suspend : ((unit, unit) continuation -> unit) -> unit Effect.t

(* A fiber that can go on is queued, or goes on at once where the domain's queue is full. *)
let ready fiber = try Fiberq.push fiber with Fiberq.Full -> continue fiber ()

let start task =
  match task () with
  | () -> ()
  | effect Yield, fiber -> ready fiber
  | effect (Suspend register), fiber -> register fiber

(* Promises. *)
type 'a state = Kept of 'a | Broken of exn | Open of (unit, unit) continuation list

exception Settled_twice

let outcome task = match task () with value -> Kept value | exception e -> Broken e

let settle promise state =
  match Atomic.exchange promise state with
  | Open waiting -> List.iter ready (List.rev waiting)
  | _ -> raise Settled_twice

(* A task in a fiber of its own. It yields at once, so it is queued, and any domain may take it. *)
let async task =
  let promise = Atomic.make (Open []) in
  start (fun () -> perform Yield; settle promise (outcome task));
  promise

(* The fiber waits with the others, or goes on where the promise was settled meanwhile. *)
let rec wait_for promise fiber =
  match Atomic.get promise with
  | Open waiting as seen ->
    if not (Atomic.compare_and_set promise seen (Open (fiber :: waiting))) then
      wait_for promise fiber
  | _ -> ready fiber

let rec await promise =
  match Atomic.get promise with
  | Kept value -> value
  | Broken e -> raise e
  | Open _ -> perform (Suspend (wait_for promise)); await promise

(* The map ends when all elements are done. Where some raised, the first of them in the list tells
   which exception is raised. *)
let parallel_map f elements =
  let promises = List.map (fun element -> async (fun () -> f element)) elements in
  List.iter (fun promise -> ignore (outcome (fun () -> await promise))) promises;
  List.map await promises

(* The scheduler of a domain: it runs fibers until the promise is settled. *)
let is_open promise = match Atomic.get promise with Open _ -> true | _ -> false

let rec serve promise () =
  match Fiberq.take_from (Fiberq.self ()) with
  | Some fiber -> continue fiber (); serve promise ()
  | None ->
    if is_open promise then begin
      (match Fiberq.steal () with
       | Some fiber -> continue fiber ()
       | None -> Domain.cpu_relax ());
      serve promise ()
    end

let rec range low high = if low > high then [] else low :: range (low + 1) high

(* Runs a task on as many domains as there are slots. *)
let run task =
  let answer = async task in
  let helpers =
    List.map (fun _ -> Domain.spawn (serve answer)) (range 2 (Fiberq.slots ()))
  in
  serve answer ();
  List.iter Domain.join helpers;
  await answer

(* The size of a folder is 1 and that of its entries. Each entry has a fiber of its own; that of a
   file yields before it reads a block. *)
type entry = File of int | Folder of entry list | Locked of string

exception Unreadable of string

let blocks_read = Atomic.make 0

let rec read blocks =
  if blocks = 0 then 0
  else begin
    perform Yield;
    Atomic.incr blocks_read;
    1 + read (blocks - 1)
  end

let rec size entry =
  match entry with
  | File blocks -> read blocks
  | Folder entries -> List.fold_left (fun sum n -> sum + n) 1 (parallel_map size entries)
  | Locked name -> raise (Unreadable name)

let letters = List.map (fun _ -> File 1) (range 1 120)

let folders =
  [ ("src", Folder [File 12; Folder [File 3; File 3]; File 6]);
    ("mail", Folder [File 9; Folder letters]);
    ("home", Folder [File 40; Folder [Locked "secret"; File 5]; Locked "diary"]) ]

let count (name, entry) = (name, outcome (fun () -> size entry))

let report (name, state) =
  print_string (name ^ ": ");
  match state with
  | Kept blocks -> print_int blocks; print_newline ()
  | Broken (Unreadable name) -> print_endline (name ^ " is locked")
  | _ -> print_endline "not counted"

let () =
  List.iter report (run (fun () -> parallel_map count folders));
  print_int (Atomic.get blocks_read);
  print_endline " blocks read"
