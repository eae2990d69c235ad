(* A constraint solver. A puzzle picks its numbers by effects, as if each pick were the right one,
   and is given up by an exception where they don't fit. A continuation can be resumed only once, so
   a search can't go back into a puzzle: it runs the puzzle again, performs the picks that are
   settled, and changes the last one that can be changed. A handler between the two gives each pick
   a number that is still free: it performs a choice among those that are left.
   Prints: 734 + 734 = 1468, found by 340 runs
           queens 2 4 6 1 3 5, found by 47 runs
           4 ways to place 6 queens
           no way to place 3 queens *)
open Effect
open Effect.Deep

type _ Effect.t +=
  | Choose : int -> int Effect.t
  | Pick : int Effect.t

exception Rejected

let choose count = perform (Choose count)
let pick () = perform Pick
let require fits = if not fits then raise Rejected

(* A path holds the choices of a run, the last one first, each with how many there were. *)
let rec next_path path =
  match path with
  | [] -> None
  | (choice, count) :: before ->
    if choice + 1 < count then Some ((choice + 1, count) :: before) else next_path before

(* Runs the puzzle along a path, and on with first choices. *)
let attempt puzzle path =
  let settled = ref (List.rev path) and taken = ref [] in
  let decide count =
    let choice =
      match !settled with
      | [] -> 0
      | (choice, _) :: rest -> settled := rest; choice
    in
    taken := (choice, count) :: !taken;
    choice
  in
  let answer =
    match puzzle () with
    | answer -> Some answer
    | exception Rejected -> None
    | effect (Choose 0), k -> discontinue k Rejected
    | effect (Choose count), k -> continue k (decide count)
  in
  (answer, !taken)

(* Goes through the runs from a path on: gives each answer to a function, which says whether to go
   on, and gives back how many runs there were. *)
let search puzzle visit =
  let rec from path runs =
    let (answer, taken) = attempt puzzle path in
    let goes_on = match answer with None -> true | Some found -> visit found in
    match next_path taken with
    | Some path when goes_on -> from path (runs + 1)
    | _ -> runs
  in
  from [] 1

let first puzzle =
  let found = ref None in
  let runs = search puzzle (fun answer -> found := Some answer; false) in
  (!found, runs)

let count puzzle =
  let found = ref 0 in
  ignore (search puzzle (fun _ -> incr found; true));
  !found

(* The list without its element at a place, and that element. *)
let rec take place numbers =
  match numbers with
  | [] -> raise Rejected
  | x :: rest ->
    if place = 0 then (x, rest)
    else begin
      let (found, others) = take (place - 1) rest in
      (found, x :: others)
    end

(* Runs a puzzle in which each pick is another one of the numbers. *)
let distinct (numbers : int list) puzzle () =
  let left = ref numbers in
  match puzzle () with
  | answer -> answer
  | effect Pick, k ->
    (match take (choose (List.length !left)) !left with
     | (number, others) -> left := others; continue k number
     | exception Rejected -> discontinue k Rejected)

let rec range low high = if low > high then [] else low :: range (low + 1) high

(* Digits for letters: TWO + TWO = FOUR. *)
let sum () =
  let o = pick () in
  let r = pick () in
  require (r = (o + o) mod 10);
  let w = pick () in
  let u = pick () in
  let carry = (o + o) / 10 in
  require (u = (w + w + carry) mod 10);
  let t = pick () in
  let two = (10 * t + w) * 10 + o in
  require (t > 0 && two + two >= 1000 && (two + two) / 100 mod 10 = o);
  let f = pick () in
  require (f = (two + two) / 1000);
  (two, two + two)

(* Queens on a board, a row after the other, none of which meets another one. *)
let queens size () =
  let rec meets column distance placed =
    match placed with
    | [] -> false
    | other :: above -> abs (column - other) = distance || meets column (distance + 1) above
  in
  let rec place placed row =
    if row = size then List.rev placed
    else begin
      let column = pick () in
      require (not (meets column 1 placed));
      place (column :: placed) (row + 1)
    end
  in
  place [] 0

let board size = distinct (range 1 size) (queens size)

let report_runs runs =
  print_string ", found by ";
  print_int runs;
  print_endline " runs"

let report_sum () =
  match first (distinct (range 0 9) sum) with
  | None, _ -> print_endline "no sum"
  | Some (two, four), runs ->
    print_int two; print_string " + "; print_int two; print_string " = "; print_int four;
    report_runs runs

let report_queens size =
  match first (board size) with
  | None, _ -> print_string "no way to place "; print_int size; print_endline " queens"
  | Some columns, runs ->
    print_string "queens";
    List.iter (fun column -> print_string " "; print_int column) columns;
    report_runs runs

let () =
  report_sum ();
  report_queens 6;
  print_int (count (board 6));
  print_endline " ways to place 6 queens";
  report_queens 3
