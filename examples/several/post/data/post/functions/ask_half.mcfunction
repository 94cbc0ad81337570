scoreboard players set #who post 1
data modify storage wa:io args set value [0]
execute store result storage wa:io args[0] int 1 run scoreboard players get #x post
function wa:c0
