"""What tools/job is made of: the text form of a job, the file's layout, the program's listing, and a picture of it."""

VERSION = "0.4.0"  # of all of Boltraven
