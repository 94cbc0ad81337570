# The number is filled in by the caller.
$data modify storage counter:m notes append value $(n)
