# A module with a planted fault, to try the driver on: it says Closed where the answer is Full.
"$1" expect - | sed 's/idle:full(/idle:closed(/'
