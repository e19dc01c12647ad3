//# reading : the script that reads the data: what was asked for, names, ports, instructions and states
const names={bus:[],file:[],imm:[],unit:[]},ports=[],templates={},states=[],code=new Map(),out=[],memory=new Map(),slots=new Map(),asked={},origins=[];
let end='more cycles may follow',delay=0,changed=new Set(),instructions=0,rows=0;
const takes={
delay:w=>delay=+w[0],
asked:w=>Object.assign(asked,{first:+w[0],bound:+w[1]}),
port:w=>ports.push({part:w[0],which:w[1],buses:+w[2]}),
template:w=>templates[w[0]]=w[1],
instructions:w=>instructions=+w[0],
row:w=>{code.set(+w[0],w.slice(1).join(' '));rows++;},
code:(w,state)=>code.has(state.pc)||code.set(state.pc,w.join(' ')),
state:w=>{
states.push({cycle:w[0],pc:+w[1],jump:null,files:[],imms:[],units:[],input:'',out:out.slice(),memory:new Map(memory),changed:states.length?changed:new Set(),
kept:new Map(slots)});
changed=new Set();
},
//# origins : the script that reads which lines a block of code stands for, and which variables are live in it, each with its home
block:w=>{
const block=originOf(['block',...w]);
origins.push({...block,address:+block.rest[1],cycles:+block.rest[3],lines:[],lives:[],tint:'tint'+origins.length%6});
},
lines:w=>origins[origins.length-1].lines=w.map(line=>origins[origins.length-1].proc+':'+line),
live:w=>origins[origins.length-1].lives.push({name:w[0],home:w[1]}),
//# lines : the script that reads the lines of a state
pending:(w,state)=>state.jump={kind:w[0],to:w[1],left:+w[2]},
registers:(w,state)=>state.files.push(w),
immediates:(w,state)=>w.forEach((word,k)=>state.kept.set(names.imm[state.imms.length]+'.'+k,word))||state.imms.push(w),
operands:(w,state)=>w.forEach((word,k)=>state.kept.set(names.unit[k]+'.o',word)),
return:(w,state)=>state.kept.set('gcu.ra',w[0]),
results:(w,state)=>state.units.push(w),
input:(w,state)=>state.input=w[0],out:w=>out.push(w[0]),
store:w=>{memory.set(+w[0],w[1]);changed.add(+w[0]);},
slot:w=>slots.set('slot.'+w[0],w[1])
};
for(const line of find('data').textContent.split(newline)){
const [kind,...words]=line.split(' ');
if(names[kind])names[kind].push(words[0]);
else if(takes[kind])takes[kind](words,states[states.length-1]);
else if(line)end=line;
}
const joined=joinAll(stagesOf(find('source').textContent));
//# moves : the script that works out which moves of a state act, and the words that they carry
function wordOf(state,source){
const [unit,index]=source.split('.'),file=names.file.indexOf(unit),q=names.unit.indexOf(unit);
if(/^[0-9]+$/.test(source))return source;
if(file>=0)return state.files[file][+index];
if(q>=0)return state.units[q][0];
return state.kept.get(source)||'-';
}
function actOf(state,text){
const [,guard,source,target]=/^([?!][^ ]+ )?([^ ]+) -> ([^ ]+)$/.exec(text)||[];
if(!target)return {text,look:'plain',word:'',source:'',target:''};
const truth=guard&&wordOf(state,guard.slice(1,-1)),acts=!guard||truth!='-'&&(guard[0]=='?')==(truth!='0');
return {text,look:acts?'active':'passed',word:acts?wordOf(state,source):'',told:acts&&!/^[0-9]/.test(source),source,target};
}
function actsOf(state){
const [moves,long]=(code.get(state.pc)||'').replace(/ ;$/,'').split(' [');
state.acts=moves.split(' , ').map(text=>actOf(state,text));
state.long=long?'['+long:'';
}
states.forEach(actsOf);
const reached=new Set(states.map(state=>state.pc));
//# words : the script that writes words: decimal, signed or hexadecimal
const forms=['decimal','signed','hexadecimal'];
let form=0;
function shown(word){
if(word===undefined||word===''||word=='-'||form==0)return word||'-';
if(form==1)return ''+(+word>=2**31?word-2**32:word);
return '0x'+(+word).toString(16);
}
const cell=(name,word,old)=>make('span',old===undefined||old==word?'cell':'cell changed',name+': '+shown(word));
