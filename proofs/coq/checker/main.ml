(* Prints what `judge` says of the bundles in files, or of standard input. Coq proves the checker and writes the lines;
   this reads and writes bytes. Status: 0 certified or stable, 2 no bundle, 3 rejected. *)
open Checker

(* the constructors of Coq's bytes are numbered from 0 to 255, and OCaml has such constructors as these numbers *)
let byte_of (c : char) : byte = Obj.magic (Char.code c)
let char_of (b : byte) : char = Char.chr (Obj.magic b)
let bytes_of text =
  let rec from i acc = if i < 0 then acc else from (i - 1) (byte_of text.[i] :: acc) in
  from (String.length text - 1) []

let whole channel =
  let buffer = Buffer.create 65536 in
  (try while true do Buffer.add_channel buffer channel 1 done with End_of_file -> ());
  Buffer.contents buffer

let judged text =
  let verdict = judge (bytes_of text) in
  List.iter (fun b -> print_char (char_of b)) (verdict_text verdict);
  match verdict with Certified _ | Stable _ -> 0 | Rejected -> 3 | No_bundle -> 2

let () =
  let of_file name = judged (if name = "-" then whole stdin else (let file = open_in_bin name in let text = whole file in close_in file; text)) in
  let of_file name = try of_file name with Sys_error why -> prerr_endline ("checker: " ^ why); 2 in
  match List.tl (Array.to_list Sys.argv) with
  | [] -> exit (judged (whole stdin))
  | names -> exit (List.fold_left (fun worst name -> max worst (of_file name)) 0 names)
