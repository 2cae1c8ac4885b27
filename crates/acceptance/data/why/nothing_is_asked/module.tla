---- MODULE Blink ----
VARIABLE light
Init == light = "on"
Next == light' = IF light = "on" THEN "off" ELSE "on"
====
