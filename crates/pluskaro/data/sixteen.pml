active[16]proctype p(){skip}
