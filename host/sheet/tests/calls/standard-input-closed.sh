sheet judge - <&-
