(* Work stealing. A task that performs Pause goes to the queue of the domain that runs it. A domain
   goes on with the oldest task of its own queue, or else of the next queue that has one, so that
   domains without tasks of their own take those of others. Which domain runs which task depends on
   the schedule, the sum doesn't: run it with any --domains and any --turns.
   Prints: 20 tasks, sum 8610 *)
open Effect
open Effect.Deep

type _ Effect.t += Pause : unit Effect.t

let sum = Atomic.make 0
let finished = Atomic.make 0
let tasks = 20

(* Adds its number once for each pause, and pauses as often as its number says. *)
let rec work n left =
  if left > 0 then begin
    ignore (Atomic.fetch_and_add sum (n * 3));
    perform Pause;
    work n (left - 1)
  end

let start n =
  match work n n with
  | () -> Atomic.incr finished
  | effect Pause, k -> Fiberq.push k

(* The oldest task of this domain's own queue, or else of the next one that has a task. Fiberq.steal
   does the same. *)
let rec steal_from slot left =
  if left = 0 then None
  else
    match Fiberq.take_from (slot mod Fiberq.slots ()) with
    | Some task -> Some task
    | None -> steal_from (slot + 1) (left - 1)

let steal () = steal_from (Fiberq.self ()) (Fiberq.slots ())

let rec serve () =
  match steal () with
  | Some task -> continue task (); serve ()
  | None ->
    if Atomic.get finished < tasks then begin
      Domain.cpu_relax ();
      serve ()
    end

let helper () = try Some (Domain.spawn serve) with Failure _ -> None
let finish helper =
  match helper with
  | Some domain -> Domain.join domain
  | None -> ()

let () =
  let helpers = List.map helper [(); ()] in
  for n = 1 to tasks do
    start n
  done;
  serve ();
  List.iter finish helpers;
  print_int (Atomic.get finished);
  print_string " tasks, sum ";
  print_int (Atomic.get sum);
  print_newline ()
