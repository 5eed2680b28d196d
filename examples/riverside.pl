% The riverside garage: two decks, four rows of five bays, a box on each deck.
%
%             drive                river
%   low deck      a1  a2  a3  a4  a5
%          low    b1  b2  b3  b4  b5
%   high deck     c1  c2  c3  c4  c5
%          high   d1  d2  d3  d4  d5
%
% Each bay has a sensor. Its cable goes to the box of the deck and takes a
% channel there; by each channel the box switches one light. Rows b and d are
% cabled from the drive on, rows a and c from the river on.

% place(Bay, Row, Place): places count from the drive.
place(a1, a, 1).
place(a2, a, 2).
place(a3, a, 3).
place(a4, a, 4).
place(a5, a, 5).
place(b1, b, 1).
place(b2, b, 2).
place(b3, b, 3).
place(b4, b, 4).
place(b5, b, 5).
place(c1, c, 1).
place(c2, c, 2).
place(c3, c, 3).
place(c4, c, 4).
place(c5, c, 5).
place(d1, d, 1).
place(d2, d, 2).
place(d3, d, 3).
place(d4, d, 4).
place(d5, d, 5).

% disabled(Bay), charging(Bay), reserved(Bay, Who)
disabled(a1).
disabled(c1).
charging(b4).
charging(b5).
reserved(a4, doctor).
reserved(c2, boat_club).
reserved(c3, boat_club).
reserved(c4, boat_club).

% plug(Row, Box, Half, End): where a row is plugged in, and from which end it is cabled.
plug(a, low, upper, river).
plug(b, low, lower, drive).
plug(c, high, upper, river).
plug(d, high, lower, drive).

% turned(Place, Socket): places counted from the river.
turned(1, 5).
turned(2, 4).
turned(3, 3).
turned(4, 4).
turned(5, 1).

% socket(End, Place, Socket): the socket of a place in its half of the box.
socket(drive, Place, Place).
socket(river, Place, Socket) :- turned(Place, Socket).

% channel(Half, Socket, Channel): channels 11 to 15 and 21 to 25 of a box are for bays, 16 and 26
% for signs.
channel(upper, 1, 11).
channel(upper, 2, 12).
channel(upper, 3, 13).
channel(upper, 4, 14).
channel(upper, 5, 15).
channel(lower, 1, 21).
channel(lower, 2, 22).
channel(lower, 3, 23).
channel(lower, 4, 24).
channel(lower, 5, 25).

% lamp(Box, Channel, Light): as the lights hang; light_a4 hangs over bay a4.
lamp(low, 11, light_a5).
lamp(low, 12, light_a4).
lamp(low, 13, light_a3).
lamp(low, 14, light_a2).
lamp(low, 15, light_a1).
lamp(low, 21, light_b1).
lamp(low, 22, light_b2).
lamp(low, 23, light_b3).
lamp(low, 24, light_b4).
lamp(low, 25, light_b5).
lamp(low, 16, sign_gate).
lamp(low, 26, sign_ramp).
lamp(high, 11, light_c5).
lamp(high, 12, light_c4).
lamp(high, 13, light_c3).
lamp(high, 14, light_c2).
lamp(high, 15, light_c1).
lamp(high, 21, light_d1).
lamp(high, 22, light_d2).
lamp(high, 23, light_d3).
lamp(high, 24, light_d4).
lamp(high, 25, light_d5).
lamp(high, 16, sign_roof).

% wired(Bay, Box, Channel): the channel that the cable of a bay's sensor takes.
wired(Bay, Box, Channel) :-
    place(Bay, Row, Place),
    plug(Row, Box, Half, End),
    socket(End, Place, Socket),
    channel(Half, Socket, Channel).

% light(Bay, Light): the light that a bay's sensor switches.
light(Bay, Light) :- wired(Bay, Box, Channel), lamp(Box, Channel, Light).

% next(Place, After), before(Place, After): places in the order of a row.
next(1, 2).
next(2, 3).
next(3, 4).
next(4, 5).
before(Place, After) :- next(Place, After).
before(Place, After) :- next(Place, Between), before(Between, After).

% twice(Light, Bay, Other): two bays of a row that switch one light, which must not be.
twice(Light, Bay, Other) :-
    place(Bay, Row, Place), before(Place, After), place(Other, Row, After),
    light(Bay, Light), light(Other, Light).

% fuse(Channel, Fuse): the fuses of a box.
fuse(11, left).
fuse(12, right).
fuse(13, left).
fuse(14, right).
fuse(15, left).
fuse(21, right).
fuse(22, left).
fuse(23, right).
fuse(24, left).
fuse(25, right).

% dark(Fuse, Bay, Other): neighbours on one fuse, which must not be.
dark(Fuse, Bay, Other) :-
    place(Bay, Row, Place), next(Place, After), place(Other, Row, After),
    wired(Bay, Box, Channel), fuse(Channel, Fuse),
    wired(Other, Box, Second), fuse(Second, Fuse).
