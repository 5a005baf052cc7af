(* Input and output of the checker: bytes become Coq's numbers, and Coq's numbers bytes. All else is
   in Coq: Run.v says what the line and the status are, Print.v what --coq writes. *)

module C = Nucleolus

(* The most bytes that are read: one more than a document may have, or than two may. *)
let most_bytes = 8_388_609

let rec positive i =
  if i = 1 then C.XH
  else if i land 1 = 1 then C.XI (positive (i lsr 1)) else C.XO (positive (i lsr 1))

let rec int = function C.XH -> 1 | C.XI p -> (2 * int p) + 1 | C.XO p -> 2 * int p

let numbers = Array.init 256 (fun i -> if i = 0 then C.N0 else C.Npos (positive i))
let small = function C.N0 -> 0 | C.Npos p -> int p
let print channel = List.iter (fun byte -> output_byte channel (small byte))

let rec read most buffer part =
  let n = input stdin part 0 (min (Bytes.length part) (most - Buffer.length buffer)) in
  Buffer.add_subbytes buffer part 0 n;
  if n > 0 then read most buffer part else Buffer.contents buffer

let bytes_of text =
  let rec from i rest = if i < 0 then rest else from (i - 1) (numbers.(Char.code text.[i]) :: rest) in
  from (String.length text - 1) []

let answer most program =
  let complain text = prerr_endline ("check: " ^ text); 2 in
  try
    let text = bytes_of (read most (Buffer.create 65536) (Bytes.create 65536)) in
    let { C.printed; sentences; status } = program text in
    print stdout printed;
    flush stdout;
    List.iter (fun s -> prerr_string "check: "; print stderr s; prerr_newline ()) sentences;
    small status
  with
  | Stack_overflow | Out_of_memory -> complain "out of memory: the document is too large here"
  | Sys_error text -> complain text

let () =
  exit (match Array.to_list Sys.argv with
    | [_] -> answer most_bytes C.run
    | [_; "--coq"] -> answer most_bytes (C.print_coq false)
    | [_; "--coq"; "--real"] -> answer most_bytes (C.print_coq true)
    | [_; "--coq"; "--between"] -> answer (2 * most_bytes) C.print_range
    | _ -> prerr_endline "usage: check [--coq [--real | --between]] < LINE"; 2)
