"""Says in a sentence or two what an answer of delorean means: which key of a plan, which byte of a log, why a file fails.

`explaining.explain(status, words, line)` gives the text. `work.first_refusal(words)` does what the program does before it
runs anything, by readers of its own (plan.py, image.py, log.py, tail.py, strata.py, script.py, source.py), and gives the first
refusal with what was found. If that isn't the program's answer, or a file can't be read again, the rule in words is given
(rules.py). `main` is called by bin/delorean, and docs/answers.md is made from the same texts (page.py)."""
