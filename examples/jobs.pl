% Three jobs on one machine, one after another, each an hour long, from 8 to 12 o'clock: when may each begin? Each job
% must leave an hour for those that follow it, and begin after those that go before, so of four hours two are left to each.
hour(8). hour(9). hour(10). hour(11).
before(First, Second) :- hour(First), hour(Second), plus(First, 1, End), End #=< Second.
?- before(Cut, Weld) infers most, before(Weld, Paint) infers most.
