(* A sum over domains. The first half of a range is summed by a new domain and the second half by
   this one, down to ranges that are short or to where no slot is free: there the range is summed in
   place. Which domain sums what depends on the schedule, the sum doesn't: run it with any --domains
   and any --turns.
   Prints: 5000050000 *)
let rec sum_in_place low high total =
  if low > high then total else sum_in_place (low + 1) high (total + low)

let spawn_sum sum low high =
  try Some (Domain.spawn (fun () -> sum low high)) with Failure _ -> None

let rec sum low high =
  if high - low < 1000 then sum_in_place low high 0
  else begin
    let middle = (low + high) / 2 in
    match spawn_sum sum low middle with
    | None -> sum_in_place low high 0
    | Some domain ->
      let right = sum (middle + 1) high in
      right + Domain.join domain
  end

let () =
  print_int (sum 1 100000);
  print_newline ()
