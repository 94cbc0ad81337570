scoreboard objectives add post dummy
scoreboard players set #who post 0
