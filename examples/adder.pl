% Two bits are added to two bits, and the sum is 6, in binary 110. The second adder can give 1 and carry 1 only from three
% ones, so the carry between them is 1; that wakes the first adder, whose inputs must then be ones too.
and(0, 0, 0). and(0, 1, 0). and(1, 0, 0). and(1, 1, 1).
or(0, 0, 0). or(0, 1, 1). or(1, 0, 1). or(1, 1, 1).
xor(0, 0, 0). xor(0, 1, 1). xor(1, 0, 1). xor(1, 1, 0).
add(A, B, In, Sum, Out) :- xor(A, B, P), xor(P, In, Sum), and(A, B, Q), and(P, In, R), or(Q, R, Out).
?- add(A0, B0, 0, 0, Carry) infers most, add(A1, B1, Carry, 1, 1) infers most.
