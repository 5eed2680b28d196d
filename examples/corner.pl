% The corner garage: one deck, two rows of three bays, one drive between them.
%
%            north row
%          n1    n2    n3
%   gate     the drive      lift
%          s1    s2    s3
%            south row

% place(Bay, Row): the row of a bay.
place(n1, north).
place(n2, north).
place(n3, north).
place(s1, south).
place(s2, south).
place(s3, south).

% kind(Bay, Kind): who may park there.
kind(n1, reserved).
kind(n2, open).
kind(n3, open).
kind(s1, open).
kind(s2, disabled).
kind(s3, charging).

% colour(Kind, Colour): the light of a free bay.
colour(open, green).
colour(reserved, yellow).
colour(disabled, blue).
colour(charging, white).

% taken(Bay), free(Bay): what the sensors say.
taken(n1).
taken(n3).
taken(s1).
free(n2).
free(s2).
free(s3).

% light(Bay, Colour): the light over a bay.
light(Bay, red) :- taken(Bay).
light(Bay, Colour) :- free(Bay), kind(Bay, Kind), colour(Kind, Colour).

% full(Row): every bay of the row is taken.
full(north) :- taken(n1), taken(n2), taken(n3).
full(south) :- taken(s1), taken(s2), taken(s3).

% sign(Row, Sign): the sign at the head of a row: a cross, or an arrow to a green bay.
sign(Row, cross) :- full(Row).
sign(Row, arrow(Bay)) :- place(Bay, Row), light(Bay, green).

% differ(Fuse, Fuse): a blown fuse must not leave two neighbours dark.
differ(left, right).
differ(right, left).

% fuses(N1, N2, N3, S1, S2, S3): the fuse of each light. Bays side by side differ, and bays
% across the drive.
fuses(N1, N2, N3, S1, S2, S3) :-
    differ(N1, N2), differ(N2, N3),
    differ(S1, S2), differ(S2, S3),
    differ(N1, S1), differ(N2, S2), differ(N3, S3).

% cable(From, To): the sensors' cable, a ring from the gate past three boxes back to the gate.
cable(gate, north_box).
cable(north_box, lift_box).
cable(lift_box, south_box).
cable(south_box, gate).

% reaches(From, To): a signal comes from one place to another, over any number of cables.
reaches(From, To) :- cable(From, To).
reaches(From, To) :- cable(From, Next), reaches(Next, To).

% within(Most, From, To): the same, over so many cables at most.
within(_, From, To) :- cable(From, To).
within(Most, From, To) :- fewer(Most, Less), cable(From, Next), within(Less, Next, To).

% fewer(Cables, Cables)
fewer(4, 3).
fewer(3, 2).
fewer(2, 1).
