# The sample runs are shown where they are asked for: one for each rule that fights.
sheet clash --runs examples/clock.txt
