model buck "a buck converter whose switch follows a clock"
  parameter Real supply = 24 "volts";
  parameter Real inductance = 0.25;
  parameter Real capacity = 0.5;
  parameter Real load = 2 "ohms";
  parameter Real period = 0.0625;
  parameter Real duty = 0.5;
  Real current(start = 0), voltage(start = 0);
  Real across "voltage across the inductor, an algebraic variable";
  discrete Real switch(start = 1), next(start = 0.03125);
equation
  across = supply*switch - voltage;
  der(current) = across/inductance;
  der(voltage) = (current - voltage/load)/capacity;
algorithm
  when time >= next then
    switch := 1 - pre(switch);
    next := pre(next) + period*duty;
  end when;
  annotation(experiment(StopTime = 4, QSS_CoefBits = 10, QSS_TickBits = 10, QSS_LevelBits = 8, QSS_Quantum = 0.0625, QSS_TimeUnit = "s"));
end buck;
