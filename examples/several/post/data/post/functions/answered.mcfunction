execute if score #who post matches 1 store result score #x post run data get storage wa:io result[0]
execute if score #who post matches 2 store result score #x post run data get storage wb:io result[0]
scoreboard players set #who post 0
scoreboard players add #steps post 1
execute if score #x post matches 1 run data modify storage post:c steps set value 0
execute if score #x post matches 1 store result storage post:c steps int 1 run scoreboard players get #steps post
execute unless score #x post matches 1 run function post:ask
