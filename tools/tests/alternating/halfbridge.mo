// Half-bridge inverter with sine-triangle PWM at 1 kHz whose carrier is turned by strict relations, LR load, 50 periods
model halfbridge
  parameter Real Vdc = 400 "V", f = 50 "Hz", fc = 1000 "Hz", m = 0.9, pi = 3.14159265, w = 2*pi*f;
  parameter Real L = 10e-3 "H", R = 5 "Ohm";
  Real rs(start = 0), rc(start = m), tri(start = -1), i(unit = "A");
  discrete Real up(start = 1), s(start = 1);
equation
  der(rs) = w*rc;
  der(rc) = -w*rs;
  der(tri) = 4*fc*up;
  der(i) = (Vdc*(s - 0.5) - R*i)/L;
algorithm
  when tri > 1 then
    up := -1;
  elsewhen tri < -1 then
    up := 1;
  end when;
  when rs > tri then s := 1; elsewhen rs < tri then s := 0; end when;
  annotation(experiment(StopTime = 1));
end halfbridge;
