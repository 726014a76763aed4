"""What onefile reads and prints, as the scripts know it: plans, reports, stores, images.

docs/TEXTS.md has the rules. Nothing here asks the program what a text means, so that its answers
can be judged.
"""
