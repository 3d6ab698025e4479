model boost "a boost converter whose switch follows a clock: a diode leads the current on while the switch is off"
  parameter Real supply = 12 "volts";
  parameter Real inductance = 0.25;
  parameter Real capacity = 0.5;
  parameter Real load = 8 "ohms";
  parameter Real period = 0.0625;
  parameter Real duty = 0.5;
  Real current(start = 0), voltage(start = 12);
  discrete Real switch(start = 1), next(start = 0.03125);
equation
  der(current) = (supply - (1 - switch)*voltage)/inductance;
  der(voltage) = ((1 - switch)*current - voltage/load)/capacity;
algorithm
  when time >= next then
    switch := 1 - pre(switch);
    next := pre(next) + period*duty;
  end when;
  annotation(experiment(StopTime = 16, QSS_CoefBits = 10, QSS_TickBits = 10, QSS_LevelBits = 8, QSS_Quantum = 0.0625, QSS_TimeUnit = "s"));
end boost;
