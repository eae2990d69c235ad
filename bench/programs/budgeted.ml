(* A search that asks before each step, under a handler that ends it by an exception when its fuel is spent. *)
open Effect
open Effect.Deep
type _ Effect.t += Tick : unit Effect.t
exception Spent
let rec place board row size count =
  perform Tick;
  if row > size then count + 1 else columns board row size 1 count
and columns board row size column count =
  if column > size then count
  else if safe board 1 column then
    columns board row size (column + 1) (place (column :: board) (row + 1) size count)
  else columns board row size (column + 1) count
and safe board distance column = match board with
  | [] -> true
  | other :: rest ->
    other <> column && other <> column + distance && other <> column - distance && safe rest (distance + 1) column
let with_fuel fuel body =
  let left = ref fuel in
  match body () with
  | value -> Some value
  | exception Spent -> None
  | effect Tick, k -> if !left = 0 then discontinue k Spent else begin decr left; continue k () end
let () = List.iter (fun fuel ->
  (match with_fuel fuel (fun () -> place [] 1 8 0) with
   | Some count -> print_int count
   | None -> print_string "spent");
  print_char ' ') [100; 1000; 10000]
