# At the first load the count begins at 0. A reload leaves all as it stands.
execute if data storage counter:io state run return 0
scoreboard objectives add counter dummy
scoreboard players set #count counter 0
scoreboard players set #ten counter 10
data modify storage counter:m mem set value []
data modify storage counter:m g set value [[0]]
data modify storage counter:m notes set value []
data modify storage counter:io state set value 0
