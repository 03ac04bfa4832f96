sheet judge - <examples/clock.sheet
