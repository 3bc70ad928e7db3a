% From Ulm to Bonn with one change. The train over Koeln comes too late for its connection, so the change is in Mainz; and
% whichever train one takes there, it is the second one on to Bonn.
leg(ulm, mainz, 8, 11).
leg(ulm, mainz, 9, 12).
leg(ulm, koeln, 10, 14).
leg(mainz, bonn, 11, 13).
leg(mainz, bonn, 13, 15).
leg(koeln, bonn, 13, 14).
journey(From, Via, To, Leave, Arrive) :- leg(From, Via, Leave, At), leg(Via, To, Next, Arrive), At #< Next.
?- journey(ulm, Via, bonn, Leave, Arrive) infers most.
