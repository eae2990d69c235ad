(* Generators. A walk over a tree yields each number by an effect; the handler turns the walk into a
   list that is made on demand, so two trees are compared without walking further than is needed.
   Prints: 1 2 3 4
           same
           different at 3 *)
open Effect
open Effect.Deep

type tree = Leaf | Node of tree * int * tree
type steps = Done | More of int * (unit -> steps)
type _ Effect.t += Yield : int -> unit Effect.t

let rec walk tree =
  match tree with
  | Leaf -> ()
  | Node (left, n, right) -> walk left; perform (Yield n); walk right

let generate tree =
  match walk tree with
  | () -> Done
  | effect (Yield n), k -> More (n, continue k)

let rec print_steps steps =
  match steps with
  | Done -> print_newline ()
  | More (n, rest) ->
    print_int n;
    (match rest () with
     | Done -> print_newline ()
     | next -> print_string " "; print_steps next)

let rec compare_steps first second =
  match first, second with
  | Done, Done -> print_endline "same"
  | More (a, left), More (b, right) when a = b -> compare_steps (left ()) (right ())
  | More (a, _), _ -> print_string "different at "; print_int a; print_newline ()
  | Done, More (b, _) -> print_string "longer by "; print_int b; print_newline ()

let one n = Node (Leaf, n, Leaf)
let balanced = Node (one 1, 2, Node (Leaf, 3, one 4))
let leaning = Node (Node (Node (one 1, 2, Leaf), 3, Leaf), 4, Leaf)
let other = Node (one 1, 2, one 7)

let () =
  print_steps (generate balanced);
  compare_steps (generate balanced) (generate leaning);
  compare_steps (generate balanced) (generate other)
