scoreboard players set #who post 2
data modify storage wb:io args set value [0]
execute store result storage wb:io args[0] int 1 run scoreboard players get #x post
function wb:c0
