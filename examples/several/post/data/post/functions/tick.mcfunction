scoreboard players set #state post 0
execute if score #who post matches 1 store result score #state post run data get storage wa:io state
execute if score #who post matches 2 store result score #state post run data get storage wb:io state
execute if score #state post matches 2 run function post:answered
