(* A protocol by shallow handlers. A session opens, reads any number of times, and closes. A
   shallow handler serves one step alone, so that each state of the protocol has a handler of its
   own; a step that the state doesn't allow is handled by none.
   Prints: open read 1 read 2 close
           open close broken *)
open Effect
open Effect.Shallow

type _ Effect.t += Begin : int Effect.t | Read : int Effect.t | Finish : unit Effect.t

let closed session =
  continue_with session ()
    { retc = (fun () -> print_newline ());
      exnc = (function Unhandled _ -> print_endline " broken" | e -> raise e);
      effc = function _ -> None }

let rec opened count session (value : int) =
  continue_with session value
    { retc = (fun () -> print_endline " not closed");
      exnc = raise;
      effc = fun (type a) (eff : a Effect.t) ->
        match eff with
        | Read ->
          Some (fun (k : (a, _) continuation) ->
            print_string " read ";
            opened (count + 1) k count)
        | Finish -> Some (fun (k : (a, _) continuation) -> print_string " close"; closed k)
        | _ -> None }

let start session =
  continue_with (fiber session) ()
    { retc = (fun () -> print_endline "not opened");
      exnc = raise;
      effc = fun (type a) (eff : a Effect.t) ->
        match eff with
        | Begin -> Some (fun (k : (a, _) continuation) -> print_string "open"; opened 1 k 0)
        | _ -> None }

let () =
  start (fun () ->
    ignore (perform Begin);
    print_int (perform Read);
    print_int (perform Read);
    perform Finish);
  start (fun () ->
    ignore (perform Begin);
    perform Finish;
    print_int (perform Read))
