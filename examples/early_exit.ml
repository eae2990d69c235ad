(* Early exit. A search over a list of lists performs an effect at the first number that fits; the
   handler answers with it and drops the rest of the search.
   Prints: looked at 4 numbers: found 25
           looked at 6 numbers: found none *)
open Effect
open Effect.Deep

type _ Effect.t += Found : int -> unit Effect.t

let looked = ref 0

let visit fits n =
  incr looked;
  if fits n then perform (Found n)

let find fits rows =
  looked := 0;
  match List.iter (List.iter (visit fits)) rows with
  | () -> None
  | effect (Found n), _ -> Some n

let report found =
  print_string "looked at ";
  print_int !looked;
  print_string " numbers: found ";
  match found with
  | None -> print_endline "none"
  | Some n -> print_int n; print_newline ()

let () =
  let rows = [[3; 8]; [14; 25; 36]; [47]] in
  report (find (fun n -> n > 20) rows);
  report (find (fun n -> n > 50) rows)
