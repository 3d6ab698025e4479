model ball
  import math;
  Real y(start = 1), v(start = 0) "speed";
equation
  der(y) = v;
  der(v) = -10;
algorithm
  when y < 0 then
    reinit(v, -0.25*v);
  end when;
  annotation(experiment(MMO_Description = "ball", MMO_Solver = QSS3, StartTime = 0.0, StopTime = 1.25, Tolerance = {1e-3}, QSS_CoefBits = 4, QSS_TickBits = 2, QSS_LevelBits = 2, QSS_Quantum = 0.25, QSS_TimeUnit = "s"));
end ball;
