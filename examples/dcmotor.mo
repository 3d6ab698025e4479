// This model is a DC motor on an H-bridge with a PWM of 10 kHz. In every period a PI controller samples the speed. From
// 75 ms on the motor has a load.
// Units: the model uses ms, V, A, Ohm and mH. The speed is in rad/s although times are in ms, so its equation has the
// factor 1/1000.
// Look at the speed and at the current i.
// Plot: tools/qss-plot examples/dcmotor.mo --names speed,i,duty
model dcmotor "H-bridge DC motor with PWM and PI control"
  parameter Real V = 24 "V", R = 1 "Ohm", L = 2 "mH", k = 0.05 "V s", J = 0.0001 "kg m2", period = 0.1 "ms", target = 200 "rad/s";
  parameter Real kp = 0.02, ki = 0.0002;
  Real i(unit = "A") annotation(QSS_Quantum = 0.01), speed(unit = "rad/s") annotation(QSS_Quantum = 0.125), acc annotation(QSS_Quantum = 0.001);
  discrete Real s, duty, clock(start = period), off(start = 1000000), err, load;
equation
  der(i) = (V*s - R*i - k*speed)/L;
  der(speed) = (k*i - load)/J/1000;
  der(acc) = 0;
algorithm
  when time >= clock then
    err := target - speed;
    reinit(acc, acc + ki*err);
    duty := kp*err + acc;
    s := 1;
    off := pre(clock) + period*(0.5 + 0.5*duty);
    clock := pre(clock) + period;
  end when;
  when duty > 0.96 then
    duty := 0.96; off := pre(clock) - period + period*0.98;
  elsewhen duty < -0.96 then
    duty := -0.96; off := pre(clock) - period + period*0.02;
  end when;
  when acc > 0.9 then reinit(acc, 0.9); elsewhen acc < -0.9 then reinit(acc, -0.9); end when;
  when time >= off then
    s := -1; off := 1000000;
  end when;
  when time >= 75 then load := 0.05; end when;
  annotation(experiment(StopTime = 120, QSS_CoefBits = 28, QSS_TickBits = 16, QSS_LevelBits = 18, QSS_Quantum = 0.01, QSS_TimeUnit = "ms"));
end dcmotor;
