differ(red, green).
differ(red, blue).
differ(green, red).
differ(green, blue).
differ(blue, red).
differ(blue, green).
