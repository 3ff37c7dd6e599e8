#!/usr/bin/env python3
"""Tells Coq a file: export.py FILE >out/second_opinion/File.v, with the theorem that it is right,
which Coq proves by running the check itself: coqc -R . SecondOpinion File.v, in that folder. The
bytes stand there as hexadecimal lines; that they are those of FILE says, with no output,
sed -n 's/^"\\([0-9a-f]*\\)"%hex;*$/\\1/p' File.v | xxd -r -p | cmp - FILE"""

import sys

with open(sys.argv[1], "rb") as file:
    data = file.read()
lines = [data[i : i + 426].hex() for i in range(0, len(data), 426)]
text = ";\n".join(f'"{line}"%hex' for line in lines)
print(
    f"""From Coq Require Import List NArith.
From SecondOpinion Require Import Specs SameFiles Hex.
Import ListNotations.

Definition file : list hex := [
{text}
].

Theorem file_is_right : IsRight (map N.to_nat (told_bytes file)).
Proof. apply is_right_only. vm_cast_no_check (eq_refl true). Qed.

Print Assumptions file_is_right."""
)
