% Which trains arrive at 10? They leave at 7, 8 or 9, so Departs is narrowed to these hours; the town may be either one.
train(paris, 7, 10).
train(paris, 8, 10).
train(paris, 12, 15).
train(lyon, 9, 10).
?- train(Town, Departs, 10) infers most.
