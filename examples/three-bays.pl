cable(left).
cable(right).
other(left, right).
other(right, left).
sheet(A, B, C) :- cable(A), cable(B), other(A, B), cable(C), other(B, C).
