sheet judge
