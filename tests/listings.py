#!/usr/bin/env python3
"""What the program `listings` owes for a text: lists, counts, smallest and least at every state over each make of store."""
import sys

from reference import Judgement, Model, Sheet, Words


def show(make, judgement):
    print("refused 22")
    print(f"{make} rounds {judgement.rounds()}")
    print("refused 20")
    for s in range(len(judgement.model.states)):
        codes = [c for c in judgement.universe if s in judgement.listed[c]]
        least = [c for c in codes if not any(d != c and d & ~c == 0 for d in codes)]
        smallest = min(codes, key=lambda c: (bin(c).count("1"), c), default="none")
        words = ["state", s, "lists", *codes, "count", len(codes), "smallest", smallest, "least", *least]
        print(*words)
    print("refused 23\nrefused 24\nrefused 25")


def narrowed(sheet, keep):
    judgement = Judgement(sheet)
    judgement.universe = [c for c in judgement.universe if keep(c)]
    judgement.listed = {c: judgement.listed[c] for c in judgement.universe}
    return judgement


text = sys.stdin.buffer.read()
words = Words(text)
model = Model(words)
while words.peek() < len(text):
    sheet = Sheet(words, model)
    size, k = len(model.actions), len(sheet.variables)
    low = sum(1 << y * size for y in range(k))
    drop = (1 << size * k) - 1
    show("full", narrowed(sheet, lambda c: True))
    show("fixed", narrowed(sheet, lambda c: c & 1 & drop == 1 & drop))
    show("single", narrowed(sheet, lambda c: c == drop))
    show("empty", narrowed(sheet, lambda c: c == low and c & 2 & drop == 2 & drop))
