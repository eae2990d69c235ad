(* Async and await. A task that is started by async answers with a promise at once; one that awaits
   a promise is suspended until the promise is settled, by a value or by an exception. What can go
   on stands in a run queue, and when nothing can, the clock moves to the sleeper that wakes first.
   Promises have values of any type, since the effects don't know of them: a task that waits is
   suspended by a function, which is given what resumes it.
   Prints: 0 ask a
           0 ask b
           20 got b
           30 got a
           30 sizes 8
           30 hello you
           30 ask c
           35 no c
           35 ask d
           45 late
           45 ask e
           60 got e
           60 quick
           85 got d
           85 slow *)
open Effect
open Effect.Deep

type _ Effect.t +=
  | Fork : (unit -> unit) -> unit Effect.t
  | Suspend : ((unit -> unit) -> unit) -> unit Effect.t
  | Sleep : int -> unit Effect.t
  | Now : int Effect.t

(* Promises. *)
type 'a state = Kept of 'a | Broken of exn | Open of (unit -> unit) list
type 'a promise = { mutable state : 'a state }

exception Settled_twice

let settle promise state =
  match promise.state with
  | Open waiting ->
    promise.state <- state;
    List.iter (fun resume -> resume ()) (List.rev waiting)
  | _ -> raise Settled_twice

let outcome task = match task () with value -> Kept value | exception e -> Broken e

let async task =
  let promise = { state = Open [] } in
  perform (Fork (fun () -> settle promise (outcome task)));
  promise

(* Suspends the task until the promise is settled. *)
let wait promise =
  perform (Suspend (fun resume ->
    match promise.state with
    | Open waiting -> promise.state <- Open (resume :: waiting)
    | _ -> resume ()))

let rec await promise =
  match promise.state with
  | Kept value -> value
  | Broken e -> raise e
  | Open _ -> wait promise; await promise

let sleep time = perform (Sleep time)

(* What is built of these. *)
let all promises = List.map await promises
let both first second = async (fun () -> let a = await first in (a, await second))
let map f promise = async (fun () -> f (await promise))

(* A promise that is settled as the first of two is. *)
let race first second =
  let winner = { state = Open [] } in
  let run promise () =
    let state = outcome (fun () -> await promise) in
    match winner.state with
    | Open _ -> settle winner state
    | _ -> ()
  in
  perform (Fork (run first));
  perform (Fork (run second));
  winner

(* The scheduler: a run queue, and those that sleep by the time at which they wake. *)
type sleeper = { wakes : int; resume : unit -> unit }

let rec insert sleeper sleepers =
  match sleepers with
  | other :: rest when other.wakes <= sleeper.wakes -> other :: insert sleeper rest
  | _ -> sleeper :: sleepers

let run main =
  let ready = Queue.create () and sleepers = ref [] and clock = ref 0 in
  let later task = Queue.push task ready in
  let rec next () =
    if not (Queue.is_empty ready) then begin
      let task = Queue.pop ready in
      task ();
      next ()
    end
    else
      match !sleepers with
      | [] -> ()
      | first :: rest ->
        clock := first.wakes;
        sleepers := rest;
        later first.resume;
        next ()
  in
  let rec start task =
    match task () with
    | () -> ()
    | effect (Fork other), k -> later (fun () -> start other); continue k ()
    | effect (Suspend register), k -> register (fun () -> later (continue k))
    | effect (Sleep time), k ->
      sleepers := insert { wakes = !clock + time; resume = continue k } !sleepers
    | effect Now, k -> continue k !clock
  in
  later (fun () -> start main);
  next ()

(* A client that asks for pages. *)
exception Missing of string
exception Late

let say text =
  print_int (perform Now);
  print_string " ";
  print_endline text

let ask name time page =
  async (fun () ->
    say ("ask " ^ name);
    sleep time;
    match page with
    | Some text -> say ("got " ^ name); text
    | None -> raise (Missing name))

let within time promise = race promise (async (fun () -> sleep time; raise Late))

let shown promise =
  match await promise with
  | text -> text
  | exception (Missing name) -> "no " ^ name
  | exception Late -> "late"

let () =
  run (fun () ->
    let a = ask "a" 30 (Some "hello") and b = ask "b" 20 (Some "you") in
    let sizes = all [map String.length a; map String.length b] in
    say ("sizes " ^ string_of_int (List.fold_left (fun sum size -> sum + size) 0 sizes));
    let (first, second) = await (both a b) in
    say (first ^ " " ^ second);
    say (shown (ask "c" 5 None));
    let slow = ask "d" 50 (Some "slow") in
    say (shown (within 10 slow));
    say (shown (race slow (ask "e" 15 (Some "quick"))));
    say (shown slow))
