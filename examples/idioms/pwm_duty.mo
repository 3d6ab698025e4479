// PWM with a variable duty: a heater of period 2 s whose controller computes in each period the duty of the next one.
// Units: s, degC, W. Look at d: 1 while the oven is cold, and at y: 80 degC in the end.
// Plot: tools/qss-plot examples/idioms/pwm_duty.mo --names y,d
model pwm_duty "PWM with a variable duty"
  parameter Real T = 2 "s", never = 1000000, ref = 80 "degC", kp = 0.05, ki = 0.0005;
  parameter Real P = 400 "W", C = 100 "J/K", G = 2 "W/K", ambient = 20 "degC";
  Real y(start = ambient, unit = "degC") annotation(QSS_Quantum = 1/64), acc(start = 0);
  discrete Real d(start = 1), h(start = 1), off(start = T), next(start = T);
equation
  der(y) = (P*h - G*(y - ambient))/C;
  der(acc) = 0;
algorithm
  when time >= off then
    h := 0;
    off := never;
  end when;
  when time >= next then
    h := 1;
    off := next + T*d;
    next := pre(next) + T;
    d := kp*(ref - y) + acc;
    reinit(acc, acc + ki*T*(ref - y));
  end when;
  when d > 1 then
    d := 1;
  elsewhen d < 0 then
    d := 0;
  end when;
  annotation(experiment(StopTime = 400, QSS_CoefBits = 24, QSS_TickBits = 8, QSS_LevelBits = 20, QSS_Quantum = 1/1024, QSS_TimeUnit = "s"));
end pwm_duty;
