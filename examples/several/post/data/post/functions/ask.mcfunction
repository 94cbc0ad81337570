# An even number is for the program under `wa`, an odd one for that under `wb`.
scoreboard players operation #odd post = #x post
scoreboard players operation #odd post %= #two post
execute if score #odd post matches 0 run function post:ask_half
execute if score #odd post matches 1 run function post:ask_triple
