byte n;proctype q(){skip}active[14]proctype p(){skip}init{n=run q();n=run q();run q()}
