(* State as an effect. A computation asks for the state and changes it by effects; the handler turns
   it into a function of the state, so that no mutable cell is needed.
   Prints: 10 11 12 13 *)
open Effect
open Effect.Deep

type _ Effect.t += Get : int Effect.t | Put : int -> unit Effect.t

let with_state first computation =
  let run =
    match computation () with
    | value -> (fun state -> (value, state))
    | effect Get, k -> (fun (state : int) -> continue k state state)
    | effect (Put state), k -> (fun _ -> continue k () state)
  in
  run first

let tick () =
  let n = perform Get in
  perform (Put (n + 1));
  n

let show n = print_int n; print_string " "

let () =
  let (last, state) = with_state 10 (fun () -> show (tick ()); show (tick ()); tick ()) in
  show last;
  print_int state;
  print_newline ()
