"""A job file's listing, then a refusal: the same file without its last byte."""
import os
import sys

import boltraven

path = sys.argv[1] if len(sys.argv) > 1 else os.path.join(os.path.dirname(os.path.abspath(__file__)), "paper.job")
with open(path, "rb") as job:
    file = job.read()

print(boltraven.run_job(file), end="")
try:
    boltraven.run_job(file[:-1])
except boltraven.Refusal as refusal:
    print("R %d: %s" % (refusal.number, refusal.sentence))
