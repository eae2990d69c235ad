let () = print_int (6 * (3 + 4))
