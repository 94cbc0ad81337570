# add: adds its argument to the count, and gives the sum.
execute store result score #n counter run data get storage counter:io args[0]
scoreboard players operation #count counter += #n counter
data modify storage counter:io result set value [0]
execute store result storage counter:io result[0] int 1 run scoreboard players get #count counter
data modify storage counter:io state set value 2
