# Each tick counts one, and every tenth number is noted.
scoreboard players add #count counter 1
execute store result storage counter:m g[0][0] int 1 run scoreboard players get #count counter
execute store result storage counter:m now.n int 1 run scoreboard players get #count counter
scoreboard players operation #rest counter = #count counter
scoreboard players operation #rest counter %= #ten counter
execute if score #rest counter matches 0 run function counter:note with storage counter:m now
