model filter "an RC low pass that is driven by a square wave"
  parameter Real R = 1 "kOhm", C = 1 "uF";
  Real v(start = 0, unit = "V")
  discrete Real source(start = 5), next(start = 4);
equation
  der(v) = (source - v)/(R*C);
algorithm
  when time >= next then
    source := 5 - pre(source);
    next := pre(next) + 4;
  end when;
  annotation(experiment(StopTime = 16, QSS_TickBits = 12, QSS_LevelBits = 16, QSS_Quantum = 0.0078125));
end filter;
