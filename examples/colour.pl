% Which colour may the door have? Both red and blue are left, which have nothing in common, so nothing is pruned.
paint(door, red).
paint(door, blue).
paint(wall, red).
?- paint(door, Colour) infers most.
