execute store result score #x post run data get storage post:c number
scoreboard players set #steps post 0
scoreboard players set #two post 2
data remove storage post:c steps
function post:ask
