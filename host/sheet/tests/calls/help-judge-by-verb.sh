sheet help judge
