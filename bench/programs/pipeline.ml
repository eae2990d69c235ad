(* A source, a filter and a sink, each a handler of the one before. *)
open Effect
open Effect.Deep
type _ Effect.t += Send : int -> unit Effect.t
let source count () = for i = 1 to count do perform (Send i) done
let filter keep part () = match part () with
  | () -> ()
  | effect (Send n), k -> if keep n then perform (Send n); continue k ()
let map change part () = match part () with
  | () -> ()
  | effect (Send n), k -> perform (Send (change n)); continue k ()
let sink part =
  let total = ref 0 in
  (match part () with
   | () -> ()
   | effect (Send n), k -> total := (!total + n) mod 1000003; continue k ());
  !total
let () = print_int (sink (map (fun n -> n * n) (filter (fun n -> n mod 3 <> 0) (source 30000))))
