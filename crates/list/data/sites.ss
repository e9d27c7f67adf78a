p aux sp ss 3
s 5
s 3
s 6
